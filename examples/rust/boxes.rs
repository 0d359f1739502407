//! Prints the sum of a file and the list of its boxes.
//!
//!     rustc boxes.rs -L FOLDER -l static=mp4norm && ./boxes movie.mp4

/// What a call answers: `struct mp4norm_answer`.
#[repr(C)]
#[derive(Debug, Default)]
pub struct Answer {
    pub status: u32,
    pub kind: u32,
    pub box_type: u32,
    pub file: u32,
    pub offset: u64,
    len: u64,
}

extern "C" {
    fn mp4norm_sum(file: *const u8, file_len: usize, words: u32, digest: *mut [u8; 32], answer: *mut Answer);
    fn mp4norm_boxes_range(file: *const u8, file_len: usize, syntax: u32, from: u64, out: *mut u8, out_len: usize,
                           answer: *mut Answer);
}

/// The SHA-256 of the normal form of what is left of a file, or why there is none.
pub fn sum(file: &[u8], words: u32) -> Result<[u8; 32], Answer> {
    let (mut digest, mut answer) = ([0; 32], Answer::default());
    unsafe { mp4norm_sum(file.as_ptr(), file.len(), words, &mut digest, &mut answer) };
    if answer.status == 0 { Ok(digest) } else { Err(answer) }
}

/// The list of a file's boxes, or why there is none.
pub fn boxes(file: &[u8]) -> Result<String, Answer> {
    let mut out = vec![0; 1 << 16];
    loop {
        let mut answer = Answer::default();
        unsafe { mp4norm_boxes_range(file.as_ptr(), file.len(), 0, 0, out.as_mut_ptr(), out.len(), &mut answer) };
        if answer.status != 0 {
            return Err(answer);
        }
        if (answer.len as usize) < out.len() {
            out.truncate(answer.len as usize);
            return Ok(String::from_utf8(out).expect("the list is ASCII"));
        }
        out.resize(out.len() * 8, 0);
    }
}

fn main() {
    let name = std::env::args().nth(1).expect("the name of a file");
    let file = std::fs::read(name).expect("a file that can be read");
    let digits = |digest: [u8; 32]| digest.iter().map(|byte| format!("{byte:02x}")).collect::<String>();
    println!("{}", sum(&file, 0).map(digits).unwrap_or_else(|answer| format!("{answer:?}")));
    print!("{}", boxes(&file).unwrap_or_else(|answer| format!("{answer:?}\n")));
}
