//! The call itself.

/// The files of a call, by their names.
#[derive(Clone, Debug, Default)]
pub struct Files {
    bytes: Vec<u8>,
}

impl Files {
    /// No files.
    pub fn new() -> Files {
        Files::default()
    }

    /// These files and one more. Of two files of one name the first counts.
    ///
    /// # Panics
    /// A name with a zero byte cannot be handed over.
    pub fn with(mut self, name: &str, content: impl AsRef<[u8]>) -> Files {
        assert!(!name.contains('\0'), "a file's name holds a zero byte");
        let content = content.as_ref();
        self.bytes.extend_from_slice(name.as_bytes());
        self.bytes.push(0);
        self.bytes.extend_from_slice(&(content.len() as u64).to_le_bytes());
        self.bytes.extend_from_slice(content);
        self
    }
}

/// How a run ended, and what it printed.
#[derive(Clone, Debug, PartialEq, Eq)]
pub struct Output {
    /// 0 if all was done, 1 if something was refused or denied, 2 for a bad command line.
    pub status: u8,
    /// What the program prints to standard output.
    pub stdout: Vec<u8>,
    /// What it prints to standard error.
    pub stderr: Vec<u8>,
}

/// Runs the program on the words, its own name first, and these files.
///
/// # Panics
/// A word with a zero byte cannot be handed over.
pub fn run<S: AsRef<str>>(words: &[S], files: &Files) -> Output {
    let mut bytes = Vec::new();
    for word in words {
        assert!(!word.as_ref().contains('\0'), "a word holds a zero byte");
        bytes.extend_from_slice(word.as_ref().as_bytes());
        bytes.push(0);
    }
    let (mut stdout, mut stderr) = (vec![0; 1 << 16], vec![0; 1 << 12]);
    loop {
        let outcome = call(&bytes, &files.bytes, &mut stdout, &mut stderr);
        let fits = outcome.status != TOO_SMALL;
        stdout.resize(outcome.out_length, 0);
        stderr.resize(outcome.err_length, 0);
        if fits {
            let status = u8::try_from(outcome.status).expect("a status of the program");
            return Output { status, stdout, stderr };
        }
    }
}

/// The status where one of the rooms was too small.
const TOO_SMALL: u32 = 3;

#[repr(C)]
struct Outcome {
    status: u32,
    out_length: usize,
    err_length: usize,
}

/// The one call of the archive: a slice crosses as its pointer and its length.
fn call(words: &[u8], files: &[u8], out: &mut [u8], err: &mut [u8]) -> Outcome {
    extern "C" {
        fn test_select_run(
            words: *const u8,
            words_length: usize,
            files: *const u8,
            files_length: usize,
            out: *mut u8,
            out_room: usize,
            err: *mut u8,
            err_room: usize,
        ) -> Outcome;
    }
    // SAFETY: each pointer comes with the length of its own slice; the two that are written to are borrowed
    // for that, and the call is proved to write nothing past them and to keep none of the four.
    unsafe {
        test_select_run(
            words.as_ptr(),
            words.len(),
            files.as_ptr(),
            files.len(),
            out.as_mut_ptr(),
            out.len(),
            err.as_mut_ptr(),
            err.len(),
        )
    }
}
