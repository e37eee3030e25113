//! The step indices of the bands: the option that gives them, and how reports tell them.

use lapped::Steps;

/// What `--steps` wants: its line in the help, and the answer to anything else.
const WANTED: &str = "One step index from 0 to 255 for all bands, as in 40, or three, for DC, \
                      low-pass and high-pass, as in 10,20,40";

// The option, for commands to take into theirs. Not documentation: clap would take its first line
// for that of the command.
#[derive(clap::Args)]
pub struct Asked {
    #[arg(short, long, value_parser = parse, allow_hyphen_values = true, help = WANTED)]
    pub steps: Steps,
}

fn parse(text: &str) -> Result<Steps, &'static str> {
    let indices: Result<Vec<u8>, _> = text.split(',').map(str::parse).collect();
    match indices.as_deref() {
        Ok(&[all]) => Ok(Steps::all(all)),
        Ok(&[dc, low, high]) => Ok(Steps { dc, low, high }),
        _ => Err(WANTED),
    }
}

/// The indices as `--steps` takes them.
pub fn text(steps: Steps) -> String {
    format!("{},{},{}", steps.dc, steps.low, steps.high)
}

/// The bands, DC first, each with its index and its step: the lines of a report, or their fronts.
pub fn lines(steps: Steps) -> [String; 3] {
    [("DC", steps.dc), ("low-pass", steps.low), ("high-pass", steps.high)]
        .map(|(band, index)| format!("{band:<9}  index {index}, step {}", lapped::step(index)))
}

#[cfg(test)]
mod tests {
    use super::*;

    #[test]
    fn one_index_or_three() {
        assert_eq!(parse("0"), Ok(Steps { dc: 0, low: 0, high: 0 }));
        assert_eq!(parse("255"), Ok(Steps { dc: 255, low: 255, high: 255 }));
        assert_eq!(parse("10,0,255"), Ok(Steps { dc: 10, low: 0, high: 255 }));
    }

    #[test]
    fn anything_else_is_answered_by_what_is_wanted() {
        for wrong in [
            "",
            ",",
            ",,",
            "256",
            "-1",
            "1,2",
            "1,2,3,4",
            "1,2,",
            ",1,2",
            "1,,2",
            "1,2,256",
            "1,-2,3",
            "1;2;3",
            "1, 2, 3",
            " 1",
            "1.0",
            "0x10",
            "ten",
            "99999999999999999999",
        ] {
            assert_eq!(parse(wrong), Err(WANTED), "{wrong:?}");
        }
    }

    /// What a report tells can be given to the next run.
    #[test]
    fn text_is_parsed_again() {
        let steps = Steps { dc: 7, low: 255, high: 0 };
        assert_eq!(text(steps), "7,255,0");
        assert_eq!(parse(&text(steps)), Ok(steps));
    }

    /// The steps are those of the rule: the index itself below 16, and (16 + 8) × 2 at 40.
    #[test]
    fn lines_have_index_and_step() {
        let lines = lines(Steps { dc: 0, low: 15, high: 40 });
        assert_eq!(
            lines,
            [
                "DC         index 0, step 1",
                "low-pass   index 15, step 15",
                "high-pass  index 40, step 48"
            ]
        );
    }
}
