//! Commands on sorted sets as lines of text.

use crate::command_lines::{line, scan_line};
use crate::member_lines::keyed_line;
use plain_model::{ScoreList, ScoreRules, Word, ZsetCommand};
use std::alloc::{AllocError, Global};

// Those of NX, XX, GT, LT and CH that stand.
fn rules_text(alloc: Global, rules: ScoreRules, ch: bool) -> Result<String, AllocError> {
    let mut text = String::from_str(alloc, "rules")?;
    for (stands, name) in [
        (rules.nx, ",nx"),
        (rules.xx, ",xx"),
        (rules.gt, ",gt"),
        (rules.lt, ",lt"),
        (ch, ",ch"),
    ] {
        if stands {
            text.push_str(name)?;
        }
    }
    Ok(text)
}

// A key, what is said beside it, and scores with their members.
fn scores_line(
    alloc: Global,
    name: &str,
    key: &Word<'_>,
    beside: &str,
    scores: &ScoreList<'_>,
) -> Result<Vec<u8>, AllocError> {
    let mut bytes = line(alloc, name, &[key.as_slice(), beside.as_bytes()])?;
    for (score, member) in scores.as_slice() {
        bytes.extend_from_slice(format!(in alloc; " {score}=")?.as_bytes())?;
        bytes.extend_from_slice(member.as_slice())?;
    }
    Ok(bytes)
}

// Commands that write scores or take members out.
fn changing_line(alloc: Global, command: &ZsetCommand<'_>) -> Result<Vec<u8>, AllocError> {
    match command {
        ZsetCommand::ZAdd(key, rules, ch, scores) => {
            let beside = rules_text(alloc, *rules, *ch)?;
            scores_line(alloc, "ZAdd", key, beside.as_str(), scores)
        }
        ZsetCommand::ZIncr(key, rules, by, member) => {
            let beside = rules_text(alloc, *rules, false)?;
            let by = format!(in alloc; "{by}")?;
            line(
                alloc,
                "ZIncr",
                &[
                    key.as_slice(),
                    beside.as_bytes(),
                    by.as_bytes(),
                    member.as_slice(),
                ],
            )
        }
        ZsetCommand::ZRem(key, own) => keyed_line(alloc, "ZRem", key, own),
        ZsetCommand::ZRemRangeByRank(key, a, b) => {
            beside_line(alloc, "ZRemRangeByRank", key, format!(in alloc; "{a} {b}")?)
        }
        ZsetCommand::ZRemRangeByScore(key, min, max) => {
            let beside = format!(in alloc; "{min:?} {max:?}")?;
            beside_line(alloc, "ZRemRangeByScore", key, beside)
        }
        ZsetCommand::ZPop(key, from, n) => {
            beside_line(alloc, "ZPop", key, format!(in alloc; "{from:?} {n:?}")?)
        }
        ZsetCommand::ZJoinStore(join, to, keys, aggregate) => {
            let beside = format!(in alloc; "{join:?} {aggregate:?}")?;
            scores_line(alloc, "ZJoinStore", to, beside.as_str(), keys)
        }
        _ => line(alloc, "another", &[]),
    }
}

// A command of a key, and what is said beside it.
fn beside_line(
    alloc: Global,
    name: &str,
    key: &Word<'_>,
    beside: String,
) -> Result<Vec<u8>, AllocError> {
    line(alloc, name, &[key.as_slice(), beside.as_bytes()])
}

/// The command's name, and what it keeps.
pub fn zset_words_line(alloc: Global, command: &ZsetCommand<'_>) -> Result<Vec<u8>, AllocError> {
    match command {
        ZsetCommand::ZScore(key, member) => {
            line(alloc, "ZScore", &[key.as_slice(), member.as_slice()])
        }
        ZsetCommand::ZMScore(key, own) => keyed_line(alloc, "ZMScore", key, own),
        ZsetCommand::ZCard(key) => line(alloc, "ZCard", &[key.as_slice()]),
        ZsetCommand::ZCount(key, min, max) => {
            beside_line(alloc, "ZCount", key, format!(in alloc; "{min:?} {max:?}")?)
        }
        ZsetCommand::ZRank(key, member, from, with_score) => {
            let beside = format!(in alloc; "{from:?} {with_score}")?;
            line(
                alloc,
                "ZRank",
                &[key.as_slice(), member.as_slice(), beside.as_bytes()],
            )
        }
        ZsetCommand::ZRange(key, a, b, from, with_scores) => {
            let beside = format!(in alloc; "{a} {b} {from:?} {with_scores}")?;
            beside_line(alloc, "ZRange", key, beside)
        }
        ZsetCommand::ZRangeByScore(key, min, max, from, limit, with_scores) => {
            let beside = format!(in alloc; "{min:?} {max:?} {from:?} {limit:?} {with_scores}")?;
            beside_line(alloc, "ZRangeByScore", key, beside)
        }
        ZsetCommand::ZRandMember(key, n, with_scores) => {
            beside_line(
                alloc,
                "ZRandMember",
                key,
                format!(in alloc; "{n:?} {with_scores}")?,
            )
        }
        ZsetCommand::ZScan(key, from, options) => {
            scan_line(alloc, "ZScan", &[key.as_slice()], *from, options)
        }
        _ => changing_line(alloc, command),
    }
}
