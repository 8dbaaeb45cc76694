//! Lines on hosts and shelves: each form once. Expected answers are worked out by hand from what a form is given.

use crate::texts::{add, add_call, no_calls};
use outside::{FileHost, FileShelf, Host, HostFault, MemHost, MemShelf, Shelf};
use row_words::{done, number, unknown};
use std::alloc::{AllocError, Global};
use std::{fs, io};

// Adds whether a name was begun, made or kept.
fn add_name(told: &mut String, answer: Result<(), HostFault>) -> Result<(), AllocError> {
    match answer {
        Ok(()) => add(told, " ok;"),
        Err(HostFault) => add(told, " fault;"),
    }
}

// What calls of a host answer: the word `take` takes into a room of three bytes, which are told too, and any other is the name of a
// file that is begun.
fn host_calls<H: Host>(alloc: Global, host: &mut H, words: &[&str]) -> Result<String, AllocError> {
    let mut told = no_calls(alloc)?;
    let mut room = [0u8; 3];
    for word in words {
        if *word == "take" {
            let taken = host.take(&mut room).ok();
            add_call(alloc, &mut told, taken, &room)?;
        } else {
            add_name(&mut told, host.begin(word))?;
        }
    }
    Ok(told)
}

// What calls of a shelf answer: a word behind a `+` is put, `keep` keeps what was put, and any other is a name that is made.
fn shelf_calls<S: Shelf>(
    alloc: Global,
    shelf: &mut S,
    words: &[&str],
    told: &mut String,
) -> Result<(), AllocError> {
    for word in words {
        match word.as_bytes() {
            [b'+', piece @ ..] => {
                let put = shelf.put(piece).ok();
                add_call(alloc, told, put, &[])?;
            }
            b"keep" => add_name(told, shelf.keep())?,
            _ => add_name(told, shelf.make(word))?,
        }
    }
    Ok(())
}

// A host in memory, two of whose calls fail, of these names and files.
fn host_of(
    alloc: Global,
    failing: &[u64; 2],
    names: &[&str],
    files: &[&str],
) -> Result<MemHost, AllocError> {
    let mut known = Vec::new(alloc);
    for name in names {
        known.push(String::from_str(alloc, name)?)?;
    }
    let mut held = Vec::new(alloc);
    for bytes in files {
        held.push(Vec::from_slice(alloc, bytes.as_bytes())?)?;
    }
    let failing = Vec::from_slice(alloc, failing)?;
    Ok(MemHost::new(known, held, failing))
}

// A shelf in memory of this name and room, one of whose calls fails.
fn shelf_of(alloc: Global, name: &str, room: usize, failing: u64) -> Result<MemShelf, AllocError> {
    let name = String::from_str(alloc, name)?;
    let room = vec![in alloc; 0u8; room]?;
    let failing = Vec::from_slice(alloc, &[failing])?;
    Ok(MemShelf::new(name, room, failing))
}

// What calls of a shelf in memory answer, and then its bytes.
fn mem_shelf(alloc: Global, shelf: &mut MemShelf, words: &[&str]) -> Result<String, AllocError> {
    let mut told = no_calls(alloc)?;
    shelf_calls(alloc, shelf, words, &mut told)?;
    let written = shelf.written();
    add_call(alloc, &mut told, Some(written.len()), written)?;
    Ok(told)
}

// Adds the bytes of a file, or that there is none.
fn add_file(rt: &HostRuntime, told: &mut String, name: &str) -> io::Result<()> {
    match fs::read(rt, name) {
        Ok(bytes) => Ok(add_call(rt.alloc(), told, Some(bytes.len()), &bytes)?),
        Err(_) => Ok(add(told, " none;")?),
    }
}

// What calls of a shelf over files answer: a word behind a `-` is a file that is removed, one behind a `%` a folder that is made, and
// one behind a `?` a file whose bytes are told.
fn file_shelf(rt: &HostRuntime, words: &[&str]) -> io::Result<String> {
    let mut shelf = FileShelf::new(rt.alloc(), rt);
    let mut told = no_calls(rt.alloc())?;
    for word in words {
        if let Some(name) = word.strip_prefix("-") {
            fs::remove_file(rt, name)?;
        } else if let Some(name) = word.strip_prefix("%") {
            fs::create_dir(rt, name)?;
        } else if let Some(name) = word.strip_prefix("?") {
            add_file(rt, &mut told, name)?;
        } else {
            shelf_calls(rt.alloc(), &mut shelf, &[*word], &mut told)?;
        }
    }
    Ok(told)
}

// Writes a file of these bytes.
fn write(rt: &HostRuntime, name: &str, bytes: &[u8]) -> io::Result<String> {
    fs::write(rt, name, bytes)?;
    Ok(done(rt.alloc())?)
}

// Removes a file.
fn remove(rt: &HostRuntime, name: &str) -> io::Result<String> {
    fs::remove_file(rt, name)?;
    Ok(done(rt.alloc())?)
}

// Removes a folder that is empty.
fn remove_folder(rt: &HostRuntime, name: &str) -> io::Result<String> {
    fs::remove_dir(rt, name)?;
    Ok(done(rt.alloc())?)
}

// What a line on a host in memory answers: two calls that fail, four names, three files, and calls.
fn mem_host(alloc: Global, words: &[&str]) -> Result<String, AllocError> {
    match words {
        [one, two, a, b, c, d, x, y, z, words @ ..] => {
            let failing = [number(one), number(two)];
            let mut host = host_of(alloc, &failing, &[*a, *b, *c, *d], &[*x, *y, *z])?;
            host_calls(alloc, &mut host, words)
        }
        _ => unknown(alloc),
    }
}

// What a line on forms in memory answers.
fn in_memory(alloc: Global, call: &str, words: &[&str]) -> Result<String, AllocError> {
    match (call, words) {
        ("host", words) => mem_host(alloc, words),
        ("shelf", [name, room, failing, words @ ..]) => {
            let mut shelf = shelf_of(alloc, name, number(room) as usize, number(failing))?;
            mem_shelf(alloc, &mut shelf, words)
        }
        _ => unknown(alloc),
    }
}

/// What a line of these words answers.
pub fn answer(rt: &HostRuntime, call: &str, words: &[&str]) -> io::Result<String> {
    match (call, words) {
        ("real_host", words) => Ok(host_calls(rt.alloc(), &mut FileHost::new(rt), words)?),
        ("real_shelf", words) => file_shelf(rt, words),
        ("write", [name, text]) => write(rt, name, text.as_bytes()),
        ("remove", [name]) => remove(rt, name),
        ("remove_folder", [name]) => remove_folder(rt, name),
        _ => Ok(in_memory(rt.alloc(), call, words)?),
    }
}
