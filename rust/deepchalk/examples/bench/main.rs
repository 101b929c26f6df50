//! The library's calls beside the second implementation's, in one run: times, growth, table sizes and
//! the gate's time. Prints Markdown; `bin/bench` starts it.

mod calls;
mod gate;
mod growth;
mod inputs;
mod page;
mod sizes;
mod texts;
mod timing;

fn main() {
    timing::settle_allocator();
    calls::print();
    growth::print();
    sizes::print();
    gate::print(std::env::args_os().nth(1));
    page::rows_above();
}
