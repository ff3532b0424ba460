//! Times of the port's calls beside those of the Rust, both in one run, on the same inputs and built for release: the
//! median of interleaved rounds, in nanoseconds for a call, as tables in Markdown. Below 1 the port is the faster.

mod files;
mod moves;
mod newick;
mod parameters;
mod rounds;

fn main() {
    moves::table();
    parameters::table();
    files::table();
    newick::table();
}
