//! The command line; `second` alone tells the commands.

use second::check::{generated, published};
use second::generate::{self, Generated};
use second::lines::{write_lines, Accepted, Tool};
use second::ogg;
use second::outcome::{exit_code, Outcome};
use second::records::{read_record, write_record, Kind, Record};
use std::io::{self, BufReader, BufWriter, Write};
use std::path::Path;
use std::process::ExitCode;
use std::{env, fs};

const USAGE: &str = "\
second lines < RECORDS                    the tool's lines
second ogg2records FILE.ogg > RECORDS     an Ogg file's packets without comments
second generate SEED COUNT > RECORDS      random streams, COUNT records or more
second check generated SEED COUNT         own checks on COUNT generated packets or more
second check streams LIST FOLDER          own checks on the published streams of a list
second bench RECORDS TIMES                reads the packets so many times";

fn main() -> ExitCode {
    let arguments: Vec<String> = env::args().skip(1).collect();
    let arguments: Vec<&str> = arguments.iter().map(String::as_str).collect();
    let outcome = match arguments[..] {
        ["lines"] => lines(),
        ["ogg2records", file] => ogg2records(file),
        ["generate", seed, count] => generate(seed, count),
        ["check", "generated", seed, count] => check_generated(seed, count),
        ["check", "streams", list, folder] => check_streams(list, folder),
        ["bench", records, times] => bench(records, times),
        _ => Err(USAGE.into()),
    };
    exit_code(outcome)
}

fn lines() -> Outcome {
    let mut output = BufWriter::new(io::stdout().lock());
    write_lines(&mut BufReader::new(io::stdin().lock()), &mut output)?;
    Ok(output.flush()?)
}

fn ogg2records(file: &str) -> Outcome {
    let packets = ogg::packets(&fs::read(file)?)?;
    let mut output = BufWriter::new(io::stdout().lock());
    for (kind, packet) in ogg::kinds(&packets)? {
        write_record(&mut output, kind, &packet.body)?;
    }
    Ok(output.flush()?)
}

fn generate(seed: &str, count: &str) -> Outcome {
    let (seed, count) = (seed.parse()?, count.parse()?);
    let mut output = BufWriter::new(io::stdout().lock());
    let Generated { records, streams, torn } = generate::write_streams(seed, count, &mut output)?;
    output.flush()?;
    let end = if torn { ", torn behind them" } else { "" };
    eprintln!("generate: seed {seed}, streams {streams}, whole records {records}{end}");
    Ok(())
}

fn check_generated(seed: &str, count: &str) -> Outcome {
    let (seed, count) = (seed.parse()?, count.parse()?);
    let seen = generated::check_seeds(seed, count)?;
    println!("generated: seed {seed}, streams {}, {}", seen.streams, seen.packets);
    println!(
        "generated: words {}, codewords read singly {}, lengths entered {}",
        seen.words, seen.codewords, seen.lengths
    );
    match seen.packets.missing()[..] {
        [] => Ok(()),
        ref missing => Err(format!("refusals never given: {missing:?}").into()),
    }
}

fn check_streams(list: &str, folder: &str) -> Outcome {
    let mut seen = published::Seen::default();
    published::check_list(&fs::read_to_string(list)?, Path::new(folder), &mut seen)?;
    println!(
        "streams: {} read, of these {} refused as listed, {} not at hand",
        seen.streams, seen.refused_streams, seen.absent
    );
    println!("streams: packets {}; words {}, samples {}", seen.packets, seen.words, seen.samples);
    Ok(())
}

fn bench(records: &str, times: &str) -> Outcome {
    let mut input = BufReader::new(fs::File::open(records)?);
    let mut packets: Vec<(Kind, Vec<u8>)> = Vec::new();
    while let Some(record) = read_record(&mut input)? {
        if let Record::Packet(kind, body) = record {
            packets.push((kind, body));
        }
    }
    let mut words = 0;
    for _ in 0..times.parse::<u64>()? {
        let mut tool = Tool::default();
        for (kind, body) in &packets {
            if let Ok(Accepted::Audio(answer)) = tool.packet(*kind, body) {
                words += answer.words;
            }
        }
    }
    println!(
        "bench: packets {}, times {times}, words {words}, outputs cleared for each packet",
        packets.len()
    );
    Ok(())
}
