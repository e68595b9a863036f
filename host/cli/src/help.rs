//! What --help prints.

pub const ALL: &str = "\
use: yindolve-desk COMMAND ..

The value engine for people. The numbers come from the proved library.

  run [FILE]                    the answers to a text, as the program gives them
  plan MODEL --steps K -o FILE  look K steps ahead, and save the value diagram
  value FILE STATE ..           the number of each state
  best FILE STATE ..            the move to make in each state
  replay FILE STATE LOG ..      what was done, line by line, and what it came to
  count FILE --objects N        how many states have which value
  next FILE [MODEL]             the value diagram as the next model's reward
  explain TEXT                  why lines are refused, and what to do
  picture MODEL [FILE]          the value diagram, drawn
  report MODEL [STATE ..]       a model on one HTML page

yindolve-desk COMMAND --help tells more; --version prints the version.
Exit status: 0 all accepted, 1 a line was refused, 2 input or output failed.
";

pub const RUN: &str = "\
use: yindolve-desk run [--strict] [FILE]

Answers a text line by line, byte for byte as the program yindolve does. Without
FILE, or for -, the text is read from standard input.

  --strict   stop at the first line that is refused before (start) is accepted:
             no value of a model other than the one written is printed

Exit status: 0 all accepted, 1 a line was refused, 2 input or output failed.
";

pub const PLAN: &str = "\
use: yindolve-desk plan MODEL --steps K -o FILE [--uncut] [--reduce]

Loads the model (the text MODEL up to its (start), or a saved plan to go on
with), looks K steps ahead, cuts after each step until nothing is left to cut
(nothing is cut where the reward has minimum variables, %name, which is told),
and saves the result to FILE after each step. Progress goes to standard error, a
table of the steps to standard output. Where a step is refused, the steps before
it are saved, and the reason is told.

  --steps K        how many steps to look ahead
  -o, --output FILE  where the result is saved, for value and picture
  --uncut          leave the cuts out
  --reduce         reduce behind the cuts of each step, as long as rows go; for
                   small diagrams without equality, constants and minimum
                   variables

Exit status: 0 all steps done, 1 a line or a step was refused, 2 input or output
failed.
";

pub const VALUE: &str = "\
use: yindolve-desk value FILE STATE ..

Prints the number of each state: V, k, S^k, the value V / S^k as a fraction in
lowest terms and as a decimal number. FILE is what plan saved, or a model's text
(then k is 0). A STATE file has (objects n), (is c o) and (true p o ..) lines. A
state that is refused is told by file, line and column, and the others are still
done.

Exit status: 0 all accepted, 1 a state was refused, 2 input or output failed.
";

pub const BEST: &str = "\
use: yindolve-desk best FILE STATE ..

Prints the move to make in each state: the first action, then the lowest
objects in order, whose weighted sum over outcomes is highest. FILE is what plan
saved, k steps ahead, or a model's text (then k is 0). The move is the first of
k + 1 steps: who makes it gets the value that the next step of plan, if it is
accepted, states. A STATE file has (objects n), (is c o) and (true p o ..)
lines. A state that is refused is told by file, line and column, and the others
are still done.

Exit status: 0 all accepted, 1 a state was refused, 2 input or output failed.
";

pub const REPLAY: &str = "\
use: yindolve-desk replay FILE STATE LOG .. [--strict] [-o END]

Replays a log from a state on: each line (did ACTION VARIANT OBJECT ..) moves the
state as the model says that this outcome does. Prints for each line that was
done how many there are by then, and the total of the rewards met, that of the
first state and of each one behind a line, as the model has them: neither scaled
nor discounted. FILE is a model's text, or what plan saved. A STATE file has
(objects n), (is c o) and (true p o ..) lines, a LOG file (did ..) lines and blank
ones; a second LOG goes on where the first ends. A line that is refused is told by
file, line and column; it moves nothing, and the others are still done.

  --strict           stop at the first line of a log that is refused
  -o, --output END   where the state at the end goes, as a STATE file

Exit status: 0 all accepted, 1 a line was refused, 2 input or output failed.
";

pub const COUNT: &str = "\
use: yindolve-desk count FILE --objects N [STATE]

Prints how many states of N objects have which value, the lowest first: V, the
value V / S^k as a fraction and as a decimal number, the states and their share.
A state is one choice of true or false for each fact over the N objects, of
every declared predicate; there may be 16 such facts. FILE is what plan saved,
or a model's text (then k is 0). A model with constants needs a STATE file that
places them: (objects n) and (is c o) lines.

  --objects N   how many objects the states have, 1 to 64

Exit status: 0 counted, 1 a line was refused, 2 input or output failed.
";

pub const NEXT: &str = "\
use: yindolve-desk next FILE [MODEL] [-o NEXT]

Writes the text of the next quarter's model: MODEL, with the value diagram of
FILE as its reward, by (text), in the place of the reward that MODEL has. FILE
is a text, which is run to its end, or what plan saved. Without MODEL it is the
model of FILE itself. Under the same constants and predicates, declared in the
same order, the new reward has the very rows of the value diagram. Its numbers
are S^k times the values, as the value diagram's are.

Where a (backup) of FILE is refused, where the form is too long for a line, or
where the new model is refused, the reason is told and nothing is written.

  -o, --output NEXT  where it goes; standard output without it

Exit status: 0 written, 1 a line was refused, 2 input or output failed.
";

pub const EXPLAIN: &str = "\
use: yindolve-desk explain TEXT

Answers the text and prints for each refused line

  file:line:column: word (number): what was found; what to do

The refusals are those of the proved library; the reasons are found by the
independent implementation, whose answers are held against the library's.

Exit status: 0 all accepted, 1 a line was refused, 2 input or output failed, or
the two implementations disagree.
";

pub const PICTURE: &str = "\
use: yindolve-desk picture MODEL [--step K | FILE] [-o PICTURE]

Draws a value diagram. MODEL is a model's text, or what plan saved. Drawn is

  without more   the diagram that was saved; of a text the reward
  --step K       the diagram after K steps, with cuts after each
  FILE           the diagram that plan saved to FILE, or the last (show) among
                 the program's answers in FILE

  -o, --output PICTURE  where it goes; standard output without it
  --format svg|dot      SVG (the rule), or text for Graphviz (the rule for a
                        PICTURE whose name ends with .dot or .gv)
  --uncut               with --step: leave the cuts out

Exit status: 0 drawn, 1 a line was refused, 2 input or output failed.
";

pub const REPORT: &str = "\
use: yindolve-desk report MODEL [STATE ..] [--steps K] [-o PAGE]

Writes one HTML page that needs nothing from elsewhere: the model, the growth of
its value diagram step by step, the cuts, the diagram as a picture, and sample
states with their values: the STATE files, the states that the text itself asks
the value of, and a few that are made from the diagram.

  --steps K          how many steps to look ahead; 3 without it, or as many as
                     the limits allow
  -o, --output PAGE  where it goes; standard output without it
  --uncut            leave the cuts out

Exit status: 0 all accepted, 1 a line of the model or a state was refused, 2
input or output failed.
";
