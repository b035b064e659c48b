use std::io::Write;

fn main() {
    let words: Vec<String> =
        std::env::args_os().skip(1).map(|word| word.to_string_lossy().into_owned()).collect();
    let out = std::io::stdout();
    let err = std::io::stderr();
    let status = plain::command_line::command(
        &words,
        &mut |path| std::fs::read(path).ok(),
        &mut out.lock(),
        &mut err.lock(),
    );
    let _ = std::io::stdout().flush();
    // The arenas are leaked on purpose; leave at once.
    std::process::exit(status as i32)
}
