//! `job-from-text [FILE]`: the job of a text (docs/JOB-TEXT.md). Bad text is named on standard error, status 1.

fn main() {
    let text = model::program::input("job-from-text");
    match model::text::to_job(&text) {
        Ok(job) => model::program::output("job-from-text", &job),
        Err(bad) => {
            eprintln!("{bad}");
            std::process::exit(1);
        }
    }
}
