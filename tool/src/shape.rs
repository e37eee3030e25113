//! Mode and size of a picture: as options give them, and as reports tell them.

use lapped::{Mode, Size};

/// A mode by its number.
pub fn parse_mode(text: &str) -> Result<Mode, String> {
    let number: u32 = text.parse().map_err(|_| "the mode is 0, 1 or 2".to_string())?;
    Mode::try_from(number).map_err(|refusal| refusal.to_string())
}

/// A size as in 525x413; reports write it with ×, which is taken too.
pub fn parse_size(text: &str) -> Result<Size, String> {
    let sides: Result<Vec<u32>, _> = text.split(['x', '×']).map(str::parse).collect();
    match sides.as_deref() {
        Ok(&[width, height]) => Size::new(width, height).map_err(|refusal| refusal.to_string()),
        _ => Err("a size is width x height in macroblocks, as in 525x413".to_string()),
    }
}

/// The lines of a report that say mode and size.
pub fn lines(mode: Mode, size: Size) -> String {
    format!(
        "  mode       {} ({})\n  size       {} × {} macroblocks, {} × {} samples\n",
        mode.number(),
        in_words(mode),
        size.width(),
        size.height(),
        size.samples_across(),
        size.samples_down(),
    )
}

fn in_words(mode: Mode) -> &'static str {
    match mode {
        Mode::Unfiltered => "no level filtered",
        Mode::SampleLevel => "the level of the samples filtered",
        Mode::BothLevels => "both levels filtered",
    }
}

#[cfg(test)]
mod tests {
    use super::*;

    #[test]
    fn sizes() {
        for (text, width, height) in [("1x1", 1, 1), ("525x413", 525, 413), ("2×3", 2, 3)] {
            assert_eq!(parse_size(text), Ok(Size::new(width, height).unwrap()), "{text}");
        }
    }

    #[test]
    fn no_sizes() {
        for text in ["", "x", "64", "64x", "x64", "1x2x3", "1 x 2", "-1x2", "1X2", "1.0x2", "axb"] {
            assert!(parse_size(text).unwrap_err().starts_with("a size is"), "{text:?}");
        }
        for (text, words) in [
            ("0x1", "the width is not 1 to 525 macroblocks"),
            ("526x414", "the width is not 1 to 525 macroblocks"),
            ("1x0", "the height is not 1 to 413 macroblocks"),
            ("525x414", "the height is not 1 to 413 macroblocks"),
        ] {
            assert_eq!(parse_size(text), Err(words.to_string()), "{text}");
        }
    }
}
