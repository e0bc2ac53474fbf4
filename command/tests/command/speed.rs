//! A folder of sheets is checked at once.
use crate::running::{run, Folder};
use second::generate::{set_of, sheet_of, Shape};
use second::random::Random;
use std::time::{Duration, Instant};

#[test]
fn a_thousand_sheets_in_well_under_a_second() {
    let folder = Folder::new("speed");
    let mut random = Random::new(401);
    let mut words = vec!["check".to_string()];
    for i in 0..1_000 {
        let shape = Shape {
            tasks: 1 + random.below(6) as usize,
            least_frames: 1,
            most_frames: 3,
            least_period: 50,
            greatest_period: 5_000,
            most_lock: 20,
            most_early: 200,
            apart: random.below(2) == 0,
            load: 300 + random.below(700) as u32,
        };
        let set = set_of(&mut random, shape);
        let bytes = sheet_of(&mut random, &set);
        words.push(folder.file(format!("{i}.sheet"), &bytes).display().to_string());
    }
    let started = Instant::now();
    let ran = run(&words);
    let took = started.elapsed();
    assert!(ran.status <= 1 && ran.text().lines().last().unwrap().starts_with("1000 sheets: "));
    println!("1,000 sheets checked in {} microseconds", took.as_micros());
    assert!(took < Duration::from_secs(1), "{took:?}");
}
