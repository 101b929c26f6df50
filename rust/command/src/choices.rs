//! A schedule as words: `0` executes thread 0, `f0` flushes it.

use crate::failure::Failure;
use reference::Choice;

/// The schedule's bytes.
pub fn schedule(words: &str) -> Result<Vec<u8>, Failure> {
    words.split_whitespace().map(choice).collect()
}

fn choice(word: &str) -> Result<u8, Failure> {
    let (flush, digits) = match word.strip_prefix('f') {
        Some(digits) => (true, digits),
        None => (false, word),
    };
    let thread = digits
        .parse::<usize>()
        .ok()
        .filter(|thread| *thread < 128 && digits.bytes().all(|digit| digit.is_ascii_digit()));
    match thread {
        Some(thread) if flush => Ok(Choice::Flush(thread).schedule_byte()),
        Some(thread) => Ok(Choice::Execute(thread).schedule_byte()),
        None => {
            let line = format!(
                "no choice: {} (0 executes thread 0, f0 flushes it)",
                word.escape_debug()
            );
            Err(Failure::bad_input(line))
        }
    }
}

#[cfg(test)]
mod tests {
    use super::*;

    #[test]
    fn words_and_bytes() {
        assert_eq!(schedule(" 0 1\tf0\nf3 ").unwrap(), [0, 1, 128, 131]);
        assert_eq!(schedule("").unwrap(), []);
        assert_eq!(schedule("127 f127").unwrap(), [127, 255]);
        for word in ["f", "128", "f128", "-1", "+1", "F0", "0,1", "x", "ff0"] {
            assert!(schedule(word).is_err(), "{word}");
        }
    }
}
