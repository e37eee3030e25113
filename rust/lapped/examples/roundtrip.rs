// Samples to coefficient planes and back: what comes back is what went in.

use lapped::{Mode, Planes, Refusal, Size};

fn main() -> Result<(), Refusal> {
    let size = Size::new(2, 3)?; // in macroblocks of 16 × 16 samples
    let samples: Vec<i32> = (0..size.samples()).map(|i| (i * i / 7 % 256) as i32).collect();

    let (planes, _) = Planes::from_samples(Mode::BothLevels, size, &samples)?;
    println!("DC of the first macroblock: {}", planes.dc[0]);

    let (back, wrapped) = planes.to_samples(Mode::BothLevels)?;
    assert_eq!(back, samples);
    println!("all {} samples came back, {wrapped}", back.len());
    Ok(())
}
