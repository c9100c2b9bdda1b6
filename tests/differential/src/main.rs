//! Holds the proved library against the model on random calls. See README.md beside the source.
//!
//!     compare COUNT SEED WHAT DRIVER...    WHAT is "all", or "salvage" for calls of the salvage run alone, or "models" for texts of declarations alone

#![cfg_attr(test, allow(dead_code))] // the worked examples need neither the driver nor the random cases

mod compare;
mod gen;
mod model;
mod plan;
mod random;
mod upload;
mod subject;
#[cfg(test)]
mod tree;
#[cfg(test)]
mod worked;

fn main() {
    let words: Vec<String> = std::env::args().collect();
    let number = |i: usize| words.get(i).and_then(|word| word.parse::<u64>().ok());
    let (Some(count), Some(seed), true) = (number(1), number(2), words.len() > 4) else {
        eprintln!("usage: compare COUNT SEED WHAT DRIVER...");
        std::process::exit(2);
    };
    let subject = subject::Subject::start(&words[4..]).expect("the driver starts");
    let mut compare = compare::Compare::new(subject);
    let outcome = match words[3].as_str() {
        "salvage" => only(upload::salvage, &mut compare, count as usize, seed),
        "models" => only(upload::models, &mut compare, count as usize, seed),
        _ => all(&mut compare, count as usize, seed),
    };
    for ((function, number), times) in &compare.met {
        println!("{function} {number}: {times}");
    }
    match outcome {
        Ok(()) => println!("{} cases from seed {seed}, no difference", compare.cases),
        Err(difference) => {
            println!("case {} from seed {seed} differs\n{difference}", compare.cases);
            std::process::exit(1);
        }
    }
}

fn all(compare: &mut compare::Compare, count: usize, seed: u64) -> Result<(), String> {
    let mut random = random::Random::new(seed);
    for sheet in gen::limits::sheets() {
        upload::limit(&mut random, compare, &sheet)?;
    }
    for case in gen::corners::cases() {
        upload::corner(&mut random, compare, &case)?;
    }
    while compare.cases < count {
        match random.below(100) {
            0 => upload::fresh(&mut random, compare)?,
            41 => upload::salvage_fresh(&mut random, compare)?,
            42..=75 => upload::salvage(&mut random, compare)?,
            76..=83 => upload::models(&mut random, compare)?,
            1..=40 => upload::run(&mut random, compare)?,
            _ => upload::check(&mut random, compare)?,
        }
    }
    Ok(())
}

type Case = fn(&mut random::Random, &mut compare::Compare) -> Result<(), String>;

/// Cases of one sort alone.
fn only(case: Case, compare: &mut compare::Compare, count: usize, seed: u64) -> Result<(), String> {
    let mut random = random::Random::new(seed);
    while compare.cases < count {
        case(&mut random, compare)?;
    }
    Ok(())
}
