//! rounds [COUNT]: how the published search's rounds end, by family: what a faster search could save. The Rust alone, with our angles.

use drive::plans::{FAMILIES, Family, by_rust, tame};
use drive::random::Random;
use quatopsy_plan::tally::Tally;

/// Sums over the plans of a family.
#[derive(Default)]
struct Sums {
    refusals: [u64; 32],
    searched: u64,
    /// Searches that ended before round 40.
    short: u64,
    all: Tally,
}

impl Sums {
    fn add(&mut self, number: u64, t: &Tally) {
        self.refusals[number as usize % 32] += 1;
        if t.runs == 0 {
            return;
        }
        self.searched += 1;
        self.short += u64::from(t.rounds < 40);
        self.all.runs += t.runs;
        self.all.rounds += t.rounds;
        self.all.accepted += t.accepted;
        self.all.rejected += t.rejected;
        self.all.singular += t.singular;
        self.all.repeated += t.repeated;
        (0..5).for_each(|k| self.all.spent[k] += t.spent[k]);
    }

    fn of(family: Family, count: u64) -> Self {
        let (mut random, mut sums) = (Random::new(41), Sums::default());
        for _ in 0..count {
            let mut plan = tame(&mut random, family);
            plan.lent = plan.room();
            let found = by_rust(&plan, true);
            sums.add(found.number, &found.tally);
        }
        sums
    }

    /// How the rounds ended.
    fn tell_rounds(&self) {
        let each = |n: u64| n as f64 / self.searched.max(1) as f64;
        let share = |n: u64| 100.0 * n as f64 / self.all.rounds.max(1) as f64;
        let Tally { rounds, accepted, rejected, singular, repeated, runs, .. } = self.all;
        println!("  {} searches, {rounds} rounds ({:.1} a plan; {} plans end before 40), {:.0} forward runs a plan", self.searched, each(rounds), self.short, each(runs));
        println!(
            "  rounds: accepted {:.1} %, rejected {:.1} %, singular {:.1} %; same z as the round before {:.1} %",
            share(accepted),
            share(rejected),
            share(singular),
            share(repeated)
        );
    }

    /// Where the time went.
    fn tell_times(&self) {
        const PHASES: [(&str, usize); 5] = [("runs", 1), ("residuals", 2), ("normal matrix", 3), ("elimination", 4), ("other", 0)];
        let all: u64 = self.all.spent.iter().sum();
        let ms = |n: u64| n as f64 / 1.0e6 / self.searched.max(1) as f64;
        let phase = |(name, k): &(&str, usize)| {
            let spent = self.all.spent[*k];
            format!("{name} {:.2} ({:.0} %)", ms(spent), 100.0 * spent as f64 / all.max(1) as f64)
        };
        let phases: Vec<String> = PHASES.iter().map(phase).collect();
        println!("  {:.2} ms a plan: {}", ms(all), phases.join(", "));
    }
}

fn main() {
    let count: u64 = std::env::args().nth(1).map_or(300, |n| n.parse().expect("a number"));
    for family in FAMILIES {
        let sums = Sums::of(family, count);
        let told: Vec<String> = (0..32).filter(|n| sums.refusals[*n] > 0).map(|n| format!("{n}: {}", sums.refusals[n])).collect();
        println!("{}: {count} plans, by refusal number (0: a path): {}", family.name, told.join(", "));
        sums.tell_rounds();
        sums.tell_times();
    }
}
