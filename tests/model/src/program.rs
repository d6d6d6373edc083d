//! What the programs share: where they read from and write to.

/// The whole of FILE, or of standard input where none is named. An error is said and ends the program
/// with status 2.
pub fn input(program: &str) -> Vec<u8> {
    use std::io::Read;
    let mut arguments = std::env::args_os().skip(1);
    let file = arguments.next();
    if arguments.next().is_some() {
        eprintln!("use: {program} [FILE]");
        std::process::exit(2);
    }
    let mut bytes = Vec::new();
    let read = match &file {
        Some(name) => std::fs::read(name).map(|b| bytes = b),
        None => std::io::stdin().lock().read_to_end(&mut bytes).map(|_| ()),
    };
    if let Err(error) = read {
        let name = file.map_or("standard input".into(), |f| f.to_string_lossy().into_owned());
        eprintln!("{program}: {name}: {error}");
        std::process::exit(2);
    }
    bytes
}

/// Writes all of it to standard output; status 2 where that fails.
pub fn output(program: &str, bytes: &[u8]) {
    use std::io::Write;
    let mut out = std::io::stdout().lock();
    if let Err(error) = out.write_all(bytes).and_then(|_| out.flush()) {
        eprintln!("{program}: standard output: {error}");
        std::process::exit(2);
    }
}
