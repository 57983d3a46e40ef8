//! Plans the problem of a file and prints the answer: plan examples/quarter-turn.slew
//! With a count and an index it prints that dense sample of the path instead: plan examples/quarter-turn.slew 100 50
use slew_examples::{ANSWER, line, plan, sample_text, workspace};
use std::error::Error;
use std::io::{Read, Write};

fn main() -> Result<(), Box<dyn Error>> {
    let words: Vec<String> = std::env::args().skip(1).collect();
    if words.len() != 1 && words.len() != 3 {
        return Err("usage: plan FILE [COUNT INDEX]".into());
    }
    // a text of more than 4,096 bytes is refused, so one byte more is all that is looked at
    let mut text = Vec::new();
    std::fs::File::open(&words[0])?.take(4097).read_to_end(&mut text)?;
    let mut lent = vec![0.0; workspace(12, 79)];

    if let [_, count, index] = &words[..] {
        let sample = sample_text(&text, &mut lent, count.parse()?, index.parse()?);
        println!("{}", line(sample.map_err(|r| format!("refused, number {}, place {}", r.number, r.place))?));
        return Ok(());
    }
    let mut out = [0; ANSWER];
    std::io::stdout().write_all(plan(&text, &mut lent, &mut out))?;
    Ok(())
}
