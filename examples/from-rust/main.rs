//! Asks the library the questions of a job, and prints the answers.

use std::{env, fs, process::ExitCode};

#[repr(C)]
#[derive(Default)]
struct Sizes {
    output: usize,
    message: usize,
}

#[rustfmt::skip]
unsafe extern "C" {
    fn symnet_call(words: *const u8, words_size: usize, files: *const u8, files_size: usize, output: *mut u8, output_size: usize,
        message: *mut u8, message_size: usize, sizes: &mut Sizes) -> u32;
}

/// The parts as one list: each behind its length, in eight bytes with the lowest first.
fn list(parts: &[&[u8]]) -> Vec<u8> {
    parts.iter().flat_map(|part| [&(part.len() as u64).to_le_bytes()[..], part].concat()).collect()
}

fn main() -> ExitCode {
    let name = env::args().nth(1).expect("the file of a job");
    let job = fs::read(&name).expect("a file that can be read");
    let (words, files) = (list(&[b"ask", name.as_bytes()]), list(&[name.as_bytes(), &job]));
    let (mut output, mut message, mut sizes) = (vec![0; 1 << 16], vec![0; 1 << 12], Sizes::default());
    let status = loop {
        let status = unsafe {
            symnet_call(words.as_ptr(), words.len(), files.as_ptr(), files.len(), output.as_mut_ptr(), output.len(),
                message.as_mut_ptr(), message.len(), &mut sizes)
        };
        if sizes.output <= output.len() && sizes.message <= message.len() {
            break status;
        }
        // the room was too small: the sizes say how much is wanted
        output.resize(sizes.output.max(output.len()), 0);
        message.resize(sizes.message.max(message.len()), 0);
    };
    print!("{}", String::from_utf8_lossy(&output[..sizes.output]));
    eprint!("{}", String::from_utf8_lossy(&message[..sizes.message]));
    ExitCode::from(u8::try_from(status).unwrap_or(2))
}
