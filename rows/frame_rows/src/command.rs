//! The command that the words of a request ask for.

ghost use Rattle.std.specs.Prelude.{IsSome};

use crate::command_lines::{connection_line, key_line, string_line};
use crate::list_lines::words_line;
use crate::member_lines::{hash_words_line, set_words_line};
use crate::score_lines::zset_words_line;
use crate::stream_lines::stream_words_line;
use command_table::{ReadingFault, read};
use plain_model::Command;
use resp_frames::Feeder;
use row_text::{shown, spelled_word};
use std::alloc::{AllocError, Global};

// The bytes of a request of the words with a space between each two.
fn request(alloc: Global, line: &str) -> Result<Vec<u8>, AllocError> {
    let count = line.split(' ').count();
    let mut bytes = Vec::new(alloc);
    bytes.extend_from_slice(format!(in alloc; "*{count}\r\n")?.as_bytes())?;
    for text in line.split(' ') {
        let word = spelled_word(alloc, text)?;
        let len = word.len();
        bytes.extend_from_slice(format!(in alloc; "${len}\r\n")?.as_bytes())?;
        bytes.extend_from_slice(word.as_slice())?;
        bytes.extend_from_slice(b"\r\n")?;
    }
    Ok(bytes)
}

// What reading the request answers: a command's name and what it keeps, or behind a `-` why it is refused.
fn read_line(alloc: Global, feeder: &Feeder) -> Result<Vec<u8>, AllocError>
    requires { IsSome feeder.now.current }
{
    match read(alloc, &feeder.current()) {
        Ok(Command::Strings(command)) => string_line(alloc, &command),
        Ok(Command::Lists(command)) => words_line(alloc, &command),
        Ok(Command::Sets(command)) => set_words_line(alloc, &command),
        Ok(Command::Hashes(command)) => hash_words_line(alloc, &command),
        Ok(Command::Zsets(command)) => zset_words_line(alloc, &command),
        Ok(Command::Streams(command)) => stream_words_line(alloc, &command),
        Ok(Command::Keys(command)) => key_line(alloc, &command),
        Ok(Command::Connection(command)) => connection_line(alloc, &command),
        Err(ReadingFault::Refused(refusal)) => {
            Vec::from_slice(alloc, format!(in alloc; "-{refusal:?}")?.as_bytes())
        }
        Err(ReadingFault::Memory) => Err(AllocError),
    }
}

/// What the words of a line ask for.
pub fn command(alloc: Global, rest: &str) -> Result<String, AllocError> {
    let request = request(alloc, rest)?;
    if request.len() > 1000 {
        return String::from_str(alloc, "?");
    }
    let mut feeder = Feeder::new(alloc);
    feeder.feed(request.as_slice())?;
    match feeder.next_request() {
        Ok(true) => {
            let line = read_line(alloc, &feeder)?;
            shown(alloc, line.as_slice())
        }
        _ => String::from_str(alloc, "no request"),
    }
}
