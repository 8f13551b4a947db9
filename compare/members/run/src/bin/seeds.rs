//! Writes the inputs that `compare/fuzz` starts from: seeds FOLDER RECORDING

use std::path::Path;
use std::{env, fs, io};

use judge::stretch::whole;
use judge::Direction;
use p9::draw::Draws;
use run::kinds::{asked, chosen, Asked, Kind, Of};

/// Each of the 57 types comes twice.
const TURNS: usize = 114;

/// As many frames of the recording stand in one stretch.
const JOINED: usize = 16;

fn main() -> io::Result<()> {
    let words: Vec<String> = env::args().skip(1).collect();
    let [folder, recording] = words.as_slice() else {
        return Err(io::Error::other("usage: seeds FOLDER RECORDING"));
    };
    let recording = fs::read(recording)?;
    let all = drawn().into_iter().chain(recorded(&recording));
    for (number, input) in all.flat_map(inputs).enumerate() {
        fs::write(Path::new(folder).join(number.to_string()), input)?;
    }
    Ok(())
}

fn drawn() -> Vec<Asked> {
    use Kind::{Dirent, Fields, Raw, Stretch, Tail, Text, Unknown};
    let draws = &mut Draws::new(1);
    let mut all = Vec::new();
    for kind in [Fields, Tail, Unknown, Dirent, Raw, Stretch, Text] {
        for turn in 0..TURNS {
            all.extend(asked(kind, turn, draws));
        }
    }
    all
}

/// Each frame, and stretches of them.
fn recorded(recording: &[u8]) -> Vec<Asked> {
    let (mut frames, mut left) = (Vec::new(), recording);
    while let Ok(frame) = whole(left) {
        left = &left[frame.len()..];
        frames.push(frame);
    }
    let single = frames.iter().map(|frame| Asked {
        of: Of::Read(match frame[4] % 2 {
            0 => Direction::T,
            _ => Direction::R,
        }),
        bytes: frame.to_vec(),
    });
    let joined = frames.chunks(JOINED).map(|frames| Asked {
        of: Of::Stretch,
        bytes: frames.concat(),
    });
    single.chain(joined).collect()
}

/// What is read is also to be written again.
fn inputs(Asked { of, bytes }: Asked) -> Vec<Vec<u8>> {
    let again = match of {
        Of::Read(direction) => Of::Again(direction),
        of => of,
    };
    let firsts = (0..=255).filter(|first| [of, again].contains(&chosen(*first)));
    // The same is chosen by several first bytes; these are the lowest two at most.
    let firsts = firsts.take(if of == again { 1 } else { 2 });
    firsts
        .map(|first| [&[first], &bytes[..]].concat())
        .collect()
}
