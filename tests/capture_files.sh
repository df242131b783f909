#!/bin/sh
# tests/capture_files.sh [PROGRAM [CELLS]]: captures in the files of other programs. A line becomes a session and a CSV file of sigrok, VCD files of
# Icarus Verilog and sigrok and as GHDL and Verilator write them, and exports of Saleae Logic 2 in CSV and binary. The commands for them in
# man/aes3-cells.1 and docs/TUTORIAL.md run as they are there. Each has to make cells with the same whole blocks as the line. Then the files that
# examples/captures/transitions.py rejects. PROGRAM is the one that bin/build leaves, CELLS that of bin/build aes3_cells_program.
#
# The last line is `N passed, M failed`, and the status 0 if none failed.

root=$(dirname "$(dirname "$(realpath "$0")")")
# shellcheck source=examples/words.sh
. "$root/examples/words.sh"
take_words 0 2 "$@"
program=$(realpath -m "${1:-$root/crates/aes3/out/aes3}")
cells=$(realpath -m "${2:-$root/crates/aes3_cells_program/out/aes3_cells_program}")
# shellcheck source=tests/judging.sh
. "$root/tests/judging.sh"
leave_out() { echo "left out: $1 ($2)"; }
[ -x "$cells" ] || { leave_out "tests/capture_files.sh" "there is no aes3-cells: bin/build aes3_cells_program"; tell; }
command -v python3 >/dev/null || { leave_out "tests/capture_files.sh" "python3 is not installed"; tell; }
cd "$work" || exit 2
mkdir bin out
ln -s "$program" bin/aes3
ln -s "$cells" bin/aes3-cells
ln -s "$root/examples" examples
PATH=$work/bin:$PATH

# The line: three whole blocks, between the end of a block and the beginning of one. One cell a line in cells.mem.
aes3 encode <"$root/examples/speech.block" | aes3 cut 100 5 | tail -c +3001 | head -c 98000 >sent.txt
tr -d '\n' <sent.txt | fold -w 1 >cells.mem
aes3 normal <sent.txt >whole.txt
judge "three whole blocks were sent" test "$(wc -l <whole.txt)" = 1152

# commands FILE: the commands of the manual page and of the tutorial that make cells of FILE, one in each.
commands() {
    tr -d '\134' <"$root/man/aes3-cells.1" | sed -n '/^\.EX/,/^\.EE/p' | grep -F " $1 " | grep -F '| aes3-cells'
    grep '^|' "$root/docs/TUTORIAL.md" | grep -o '`[^`]*`' | tr -d '`' | sed 's/\\|/|/g' | grep -F " $1 " | grep -F '| bin/aes3-cells'
}
# comes_back COMMAND: it writes a line with the same whole blocks.
comes_back() {
    rm -f line.txt out/line.txt
    sh -c "$1" || return 1
    cat line.txt out/line.txt 2>/dev/null | aes3 normal | cmp - whole.txt
}
# documented WHAT FILE: there is a command for FILE in both pages, and each of them works.
documented() {
    commands "$2" >found
    judge "$1: a command in each of both pages: $(cat found)" test "$(wc -l <found)" = 2
    while IFS= read -r command; do
        judge "$1: $command" comes_back "$command"
    done <found
}

# Of sigrok: eight channels, of which the line is the fourth.
if command -v sigrok-cli >/dev/null; then
    "$root/examples/neighbours/samples.py" 3.90625 <sent.txt | tr '\001' '\010' >samples
    sigrok-cli -I binary:numchannels=8:samplerate=24000000 -i samples -o capture.sr
    documented "a session of sigrok" capture.sr
    sigrok-cli -i capture.sr -O csv >capture.csv
    documented "a CSV file of sigrok" capture.csv
    tr '\010' '\001' <samples >one
    sigrok-cli -I binary:numchannels=1:samplerate=24000000 -i one -o one.sr && sigrok-cli -i one.sr -C 0=line -O vcd >dump.vcd
    documented "a VCD file of sigrok" dump.vcd
else
    leave_out "captures of sigrok" "sigrok-cli is not installed"
fi

# A simulation at 1 ps, with a clock, signals of several bits, and the line of 48 kHz.
cat >top.v <<'VERILOG'
`timescale 1ns / 1ps
module sender(input clock, output reg line);
    reg cells [0:199999];
    integer at = 0;
    initial $readmemb("cells.mem", cells);
    always @(posedge clock) begin
        line <= cells[at];
        at <= at + 1;
        if (cells[at] === 1'bx) $finish;
    end
endmodule
module top;
    reg clock = 0;
    reg [7:0] count = 0;
    wire line;
    sender sender(clock, line);
    always #81.380 clock = !clock;
    always @(posedge clock) count <= count + 1;
    initial begin
        $dumpfile("dump.vcd");
        $dumpvars;
    end
endmodule
VERILOG
if command -v iverilog >/dev/null && command -v vvp >/dev/null; then
    rm -f dump.vcd
    iverilog -o top.vvp top.v && vvp -n top.vvp >said 2>&1
    documented "a VCD file of Icarus Verilog" dump.vcd
else
    leave_out "a VCD file of Icarus Verilog" "iverilog is not installed"
fi

# vcd UNIT CELL: the changes of the line as VCD in this unit of time, of which a cell has CELL. The head is of standard input.
vcd() {
    cat
    awk -v cell="$2" '{ if ($1 != before) printf "#%.0f\nb%d%d \"\n%s!\n", (NR - 1) * cell, $1, 1 - $1, $1; before = $1 } END { printf "#%.0f\n", NR * cell }' cells.mem
}
vcd 1fs 162760416.67 >dump.vcd <<'HEAD'
$date
  Fri Jan  2 00:00:00 2026
$end
$timescale
  1 fs
$end
$scope module top $end
$var reg 2 " both[1:0] $end
$var reg 1 ! line $end
$upscope $end
$enddefinitions $end
#0
U!
HEAD
documented "a VCD file as GHDL writes it" dump.vcd
vcd 1ps 162760.41667 >dump.vcd <<'HEAD'
$version Generated by VerilatedVcd $end
$timescale 1ps $end

 $scope module TOP $end
  $var wire  1 ! line $end
  $scope module top $end
   $var wire  2 " both [1:0] $end
   $var wire  1 ! line $end
  $upscope $end
 $upscope $end
$enddefinitions $end


#0
HEAD
documented "a VCD file as Verilator writes it" dump.vcd

# Of Saleae Logic 2 at 50 MHz: a CSV file of two channels, of which the line is the second, and a binary file of the line. Both begin before 0.
python3 - <<'PYTHON'
import struct

cells = [int(it) for it in open("cells.mem")]
times = [round(number / 6.144e6 * 50e6) / 50e6 - 0.001 for number in range(len(cells) + 1)]
rows = [(times[0], 0, cells[0])] + [(time, number >> 9 & 1, cell) for number, (time, cell) in enumerate(zip(times, cells))]
rows = [row for before, row in zip([(0, 2, 2), *rows], rows) if row[1:] != before[1:]]
with open("digital.csv", "w") as file:
    file.write("Time [s],Channel 0,Channel 1\n" + "".join("%.9f,%d,%d\n" % row for row in rows))
changes = [time for time, before, cell in zip(times[1:], cells, cells[1:]) if cell != before]
with open("digital_1.bin", "wb") as file:
    file.write(struct.pack("<8siiIddQ", b"<SALEAE>", 0, 0, cells[0], times[0], times[-1], len(changes)))
    file.write(struct.pack(f"<{len(changes)}d", *changes))
PYTHON
documented "a CSV file of Saleae" digital.csv
documented "a binary file of Saleae" digital_1.bin

# What examples/captures/transitions.py rejects, and what it says.
rejected() {
    why=$1
    shift
    examples/captures/transitions.py "$@" >written 2>told && return 1
    [ ! -s written ] && [ "$(wc -l <told)" = 1 ] && grep -q -F "transitions.py: $why" told || { cat told; return 1; }
}
judge "no signal is named" rejected "--signal is one of these: Channel 0, Channel 1" digital.csv
judge "another name" rejected "--signal is one of these: TOP.line, TOP.top.line" --signal none dump.vcd
judge "a signal of several bits" rejected "--signal is one of these: TOP.line, TOP.top.line" --signal both dump.vcd
judge "no capture" rejected "sent.txt is neither a VCD file nor an export" sent.txt
judge "no file" rejected "none can't be read: " none
head -c 40 digital_1.bin >early
judge "a binary file that ends early" rejected "early can't be read: " early
{ head -c 8 digital_1.bin && printf '\001' && tail -c +10 digital_1.bin; } >later
judge "another version" rejected "this is not a digital channel in version 0" later
printf 'Time [s],Channel 0\n2026-01-02T00:00:00.000000000+00:00,0\n' >dates.csv
judge "times of the day" rejected "dates.csv can't be read: " dates.csv
printf 'Time [s],Channel 0\n0,0\n1,1\n0.25,0\n' >back.csv
judge "times that go back" eval '! examples/captures/transitions.py --rate 1 back.csv >written 2>told && grep -q -x -F "transitions.py: the times go back at 0.25" told'

# Worked by hand: a sample is 5 units of time. Two changes fall on one sample, a value is unknown, and a comment and another signal look like changes.
cat >made.vcd <<'VCD'
$timescale 10ns $end
$var wire 1 # a $end $var wire 8 #0 b $end $var wire 1 ! c [0] $end $enddefinitions $end
#5 0# b1 #0
#10 1# x!
#15 $comment 0# $end 1!
#30 0# b10 #0
#31 1#
#35 x#
#50
VCD
samples_are() {
    wanted=$1
    shift
    examples/captures/transitions.py --rate 20M "$@" | od -An -v -tu1 | tr -d ' \n' >written
    cat written
    [ "$(cat written)" = "$wanted" ]
}
judge "samples of a VCD file" samples_are 0111110000 --signal a made.vcd
judge "one bit of several" samples_are 011111111 --signal 'c[0]' made.vcd
judge "standard input" eval 'samples_are 0111110000 --signal a - <made.vcd'
tell
