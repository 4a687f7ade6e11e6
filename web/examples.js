"use strict";
// The runs of the examples, a line each: its name in an address, what it is, ABSENT, SCHEDULE, `mxm` or nothing, how many events
// contrib/pipe.html has of it, the page of docs/ that tells it, and the command there.
const RUNS = `
late_fault | a late fault | 5,6,7 | iiiiiiir |  | 16 | BOARD | ./m88 run 100 5,6,7 iiiiiiir < examples/late_fault.s
late_fault-slot | a fault before a delay slot | 5,6,7 | iiir |  | 20 | BOARD | ./m88 run 100 5,6,7 iiir < examples/late_fault.s
late_fault-line | as late as can be | 5,6,7 | iiiiiiiii |  | 15 | BOARD | ./m88 run 100 5,6,7 iiiiiiiii < examples/late_fault.s
four_loads | three loads and a stall | 6 | iiiirii |  | 15 | BOARD | ./m88 run 5 6 iiiirii < examples/four_loads.s
double | a double word | 2 | iir |  | 9 | BOARD | ./m88 run 3 2 iir < examples/double.s
exchange | a lock, by an exchange | 2 | iiir |  | 10 | BOARD | ./m88 run 100 2 iiir < examples/exchange.s
half_fault | half of a double word | none | ireiiriirerii |  | 13 | BOARD | ./m88 run 100 none ireiiriirerii < examples/half_fault.s
sum | a sum over an absent table | all | iiirrr |  | 31 | EXAMPLES | ./m88 run 1000 all iiirrr < examples/sum.s
list_walk | a list in four pages | 5,6,7,8 | iiiiiriiiiiirriiiiiirriiiiiirr |  | 42 | EXAMPLES | \
./m88 run 100 5,6,7,8 iiiiiriiiiiirriiiiiirriiiiiirr < examples/list_walk.s
hex_dump | a dump, by subroutines | all | - |  | 39 | EXAMPLES | ./m88 run 10000 all - < examples/hex_dump.s
memory_test | a test of memory | 5,6 | - |  | 347 | EXAMPLES | ./m88 run 10000 5,6 - < examples/memory_test.s
packed | misaligned and signed, by software | 2 | iiir |  | 6 | BOARD | ./m88 emu 100 2 iiir < examples/packed.s
share | a carry and a bubble | 5 | iiiri |  | 11 | BOARD | sed '/^program$/,$d' examples/share.s | ./m88 run 100 5 iiiri
merge | two tables merged | all | iiirrr |  | 47 | EXAMPLES | ./m88 trace 1000 all iiirrr < examples/merge.s
print_a | puts the letter A out | none | - |  | 0 | README | ./m88 run 100 none - < examples/print_a.s
loop | puts five letters out | none | - |  | 0 | BOARD | ./m88 run 100 none - < examples/loop.s
reverse | turns a text round | all | - |  | 0 | EXAMPLES | ./m88 run 1000 all - < examples/reverse.s
two_modes | misaligned addresses, rounded down | 2 | iiiiir | mxm | 0 | ISA | ./m88 run 100 2 iiiiir mxm < examples/two_modes.s
two_modules | two modules | none | - |  | 0 | README | ./m88 run 100 none - < examples/two_modules.s
rom | a ROM | none | - |  | 0 | EXAMPLES | ./m88 run 1000 none - < examples/rom.s
`.trim().split("\n").map(exampleOf);

function exampleOf(text) {
  const [key, title, absent, schedule, mode, events, page, ...rest] = text.split(" | ");
  return { key, title, absent, schedule, mode: mode.trim(), events: Number(events), page, command: rest.join(" | ") };
}
