//! The usage, on one screen.

pub const USAGE: &str = "\
deepchalk: looks for failing runs of small lock-free programs on a store-buffer machine

  deepchalk find FILE K                 a failing run of at most K steps, or that there is none
  deepchalk list FILE                   one run, a line for each step
  deepchalk read FILE                   the statements and the map
  deepchalk simulate FILE CHOICES       the run of these choices: 0 1 f0 executes thread 0, executes
                                        thread 1, flushes thread 0
  deepchalk replay FILE TRACE           whether the trace is that of a run
  deepchalk encode FILE K [-o TABLE]    the formula table, or its size
  deepchalk check FILE K MODEL          whether a solver's model satisfies the table
  deepchalk decode FILE K MODEL         the model's run, with the map it needs
  deepchalk show TRACE                  the lines of a trace
  deepchalk draw TRACE -o FILE.svg      the picture of a trace

FILE is a set text, K a bound from 1 to 64; - is standard input, or standard output after -o, -m, --svg.

  -o FILE           simulate, decode, find: keep the trace
  -m FILE           decode, find: keep the map
  --svg FILE        find: keep the picture
  --map FILE        simulate, replay: run over this map, not the set's
  --solver z3       find: ask Z3; the default where it is installed
  --solver search   find: search the machine's states (or --search)
  --json            the answer as JSON

Exit status: 0 done, or no run fails; 1 a run fails (find); 2 bad input; 3 refused; 4 none found, but
there may be one (find); 5 no solver, or a useless answer of it; 6 a fault of deepchalk.
";
