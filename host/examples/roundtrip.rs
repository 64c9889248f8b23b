//! A picture, its pyramid, and back: what a terminal and the depot do.
//!
//! `cargo run --release --example roundtrip`

use squeeze::{layout, rebuild_picture, write_pyramid, Channel, Record, Refusal};

const WIDTH: usize = 120;
const HEIGHT: usize = 80;

fn main() -> Result<(), Refusal> {
    // Three channels of one size, and no steps: the default plan.
    let channel = Channel::new(WIDTH as u32, HEIGHT as u32);
    let record = Record::from_parts(&[channel; 3], &[])?;
    let picture = photograph();

    // The terminal squeezes; the pyramid goes up from its front.
    let pyramid = write_pyramid(record.bytes(), &picture)?;
    let layout = layout(record.bytes())?;
    println!(
        "{} channels, {} of them coarse: {} of {} samples",
        layout.channels.len(),
        layout.coarse,
        layout.coarse_samples(),
        layout.samples()
    );

    // A channel that comes late: which channel of the picture it refines.
    let last = layout.channels.len() - 1;
    if let Some(refined) = layout.refines(last) {
        println!("channel {last} refines picture channel {refined}");
    }

    // The depot rebuilds.
    let back = rebuild_picture(record.bytes(), &pyramid)?;
    assert!(back == picture, "the picture came back changed");
    println!("the picture came back, all {} samples equal", back.len());
    Ok(())
}

/// Samples row by row, channel after channel.
fn photograph() -> Vec<i32> {
    let mut picture = Vec::new();
    for channel in 0..3 {
        for y in 0..HEIGHT {
            for x in 0..WIDTH {
                let shade = (x * (channel + 2) + y * 3) / 4 + (x * y) % 7;
                picture.push((shade % 256) as i32);
            }
        }
    }
    picture
}
