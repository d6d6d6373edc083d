//! `job-to-text [FILE]`: the text of a job (docs/JOB-TEXT.md). A refused job is named on standard error, status 1.

fn main() {
    let job = model::program::input("job-to-text");
    match model::text::from_job(&job) {
        Ok(text) => model::program::output("job-to-text", text.as_bytes()),
        Err(refused) => {
            eprintln!("{refused}");
            std::process::exit(1);
        }
    }
}
