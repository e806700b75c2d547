//! Holds the model's reply against the original's, if the original is at hand; in walks of an empty
//! needle against the original told again.

use crate::case::*;
use crate::line;
use crate::model::{Model, RULES};
use crate::original;
use crate::retold;

/// Who judges.
pub const JUDGES: &str =
    if original::AT_HAND { "the original and the model" } else { "the model alone" };

/// The model's reply, or what it and the Rust say if they differ.
pub fn judge(model: &Model, case: &Case) -> Result<Reply, String> {
    let reply = model.reply(case);
    // Whether the Rust may be asked is decided by the rules themselves, also when `model`
    // is a wrong one: the Rust may panic or never end on what 01 refuses.
    if RULES.refusal_of(case).is_some() {
        return Ok(reply);
    }
    if let Some(retold) = retold::reply(case) {
        agree_with("Rust told again", &reply, &retold)?;
    } else if let Some((plain, counted)) = original::replies(case) {
        agree(&reply, &plain, &counted)?;
    } else {
        // The right model stands in, so that a wrong one is still seen to differ.
        agree_with("rules", &reply, &RULES.reply(case))?;
    }
    Ok(reply)
}

fn agree(reply: &Reply, plain: &Reply, counted: &Reply) -> Result<(), String> {
    if counted == reply && *plain == reply.clone().without_counts() {
        return Ok(());
    }
    let mut why =
        format!("model: {} | Rust: {}", line::show_reply(reply), line::show_reply(counted));
    if *plain != counted.clone().without_counts() {
        why += &format!(" | Rust without counters: {}", line::show_reply(plain));
    }
    Err(why)
}

fn agree_with(name: &str, reply: &Reply, right: &Reply) -> Result<(), String> {
    if reply == right {
        return Ok(());
    }
    Err(format!("model: {} | {name}: {}", line::show_reply(reply), line::show_reply(right)))
}

/// Where a search that is not refused finds the needle, by the unchanged Rust, or by the model
/// if that is not at hand.
pub fn found(needle: &[u8], haystack: &[u8], backward: bool) -> Option<usize> {
    match original::search(backward) {
        Some(search) => search(haystack, needle),
        None => RULES.search(needle, haystack, backward).0,
    }
}

/// The answer line to a case line, or what model and Rust say if they differ.
pub fn answer(text: &[u8]) -> Result<String, String> {
    let Some(case) = line::parse(text) else {
        return Ok("bad line".to_string());
    };
    let reply = judge(&RULES, &case);
    reply.map(|reply| line::show_reply(&reply)).map_err(|why| {
        let asked = line::show_case(&case);
        format!("{asked} | {why}")
    })
}
