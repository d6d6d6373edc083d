//! `job [FILE]`: prints the listing of a job, or the line that refuses it.

fn main() {
    let bytes = model::program::input("job");
    model::program::output("job", model::job::run(&bytes).as_bytes());
}
