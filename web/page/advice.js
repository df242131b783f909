/* What a file is that holds no cells, or cells in another order, and what to do with it. */

import { samplesIn } from "./capture.js";
import { TURNED } from "./cells.js";
import { wholeIn } from "./reading.js";
import { counted } from "./words.js";

const RECOVER = "aes3-cells";
const CHANNEL = `${RECOVER} --bit BIT < SAMPLES > LINE    # BIT: the number of the line's channel, counted from 0`;
const SESSION = "sigrok-cli -i FILE -O binary -o SAMPLES";
const latin = bytes => String.fromCharCode(...bytes.subarray(0, 1024));

/* The commands for a file that lists when signals change, and where their script is. */
const changes = signal => [`examples/captures/transitions.py${signal} FILE > SAMPLES`, `${RECOVER} < SAMPLES > LINE`];
const SCRIPT = "transitions.py is in the sources of aes3, and in /usr/share/doc/aes3 of its Debian package. It needs Python 3. ";
const RATE = "It writes 100,000,000 samples a second; --rate sets another number. To make cells of them:";

/* Files that tell by their first bytes what they are, and the commands that make cells of them. */
const BEGINNINGS = [
    [/^(RIFF|RF64|BW64)/, "This is a sound file: it holds samples, and no cells. To make a line of it:", ["aes3 from-wav FILE | aes3 encode > LINE"]],
    [/^(FORM|fLaC|OggS|ID3)/, "This is a sound file: it holds samples, and no cells. To make a line of it:",
        ["sox FILE -t wav - | aes3 from-wav | aes3 encode > LINE"]],
    [/^PK\x03\x04[^]*(version|metadata|logic-)/, "This is a sigrok session (.sr): it holds samples of a logic analyser, and no cells "
        + "yet. To make cells of them:", [SESSION, CHANNEL]],
    [/^; CSV\b[^\n]*sigrok/, "This is a CSV file of sigrok: it holds samples of a logic analyser, and no cells yet. To make cells of them:",
        ["sigrok-cli -I csv -i FILE -O binary -o SAMPLES", CHANNEL]],
    [/^\s*\$(date|version|timescale|comment|scope)\b/, "This is a VCD file: it lists when signals change, and holds no cells yet. "
        + `${SCRIPT}NAME is a signal of one bit. If it is wrong, the script prints the valid names. ${RATE}`, changes(" --signal NAME")],
    [/^Time ?\[s\],/, "This is a CSV file of Saleae Logic: it lists when channels change, and holds no cells yet. "
        + `${SCRIPT}NAME is the title of a column. If it is wrong, the script prints the valid titles. ${RATE}`, changes(' --signal "NAME"')],
    [/^<SALEAE>/, "This is a binary file of Saleae Logic: it lists when a channel changes, and holds no cells yet. "
        + SCRIPT + RATE, changes("")],
    [/^(PK\x03\x04|\x1f\x8b|\xfd7zXZ|BZh|\x28\xb5\x2f\xfd)/, "This is a compressed file or an archive. Unpack it first.", []],
];

/* Whether words of a block file stand there: bits 0 to 3 of each are 0, and some sample is not. */
const areWords = bytes => bytes.length >= 1536 && bytes.every((byte, i) => i % 4 > 0 || (byte & 15) === 0);

/* What to say of packed cells in which blocks stand once the bits of each octet are turned; null where none do. */
async function turnedAdvice(codec, { form, file }) {
    const octets = new Uint8Array(await file.slice(0, 1 << 20).arrayBuffer());
    const isHigh = form === "packed";
    const whole = wholeIn(codec, isHigh ? octets : octets.map(octet => TURNED[octet]));
    if (whole === 0) {
        return null;
    }
    const blocks = counted(whole, "whole block", "whole blocks");
    const says = `These are packed cells with the first of eight in the ${isHigh ? "lowest" : "highest"} bit: `
        + `read so, the first ${counted(octets.length, "byte", "bytes")} have ${blocks}.`;
    return isHigh ? {
        says: `${says} aes3 reads such a file with --lsb-first beside --raw-in or --packed-in. This reverses the bits of each byte instead:`,
        commands: [`perl -0777 -pe '$_ = pack "B*", unpack "b*", $_' FILE > REVERSED; printf '\\0' >> REVERSED`],
        form: "packed-low",
    } : { says, commands: [], form: "packed" };
}

/* What to say of a file without a whole block; the commands that mend it; whether it holds no cells (`isOther`), or in which form it
   is to be read, or in which of its channels a line may be. */
export async function adviceOf(codec, cells) {
    const { head, form, file } = cells;
    const known = form === "text" ? undefined : BEGINNINGS.find(([beginning]) => beginning.test(latin(head)));
    if (file.size === 0) {
        return { says: "The file is empty.", commands: [] };
    }
    if (known) {
        return { says: known[1], commands: known[2], isOther: true };
    }
    const samples = form === "packed" && samplesIn(head);
    if (samples) {
        const says = "These look like samples of a logic analyser, and no cells yet. To make cells of them, here or by a program:";
        const command = CHANNEL.replace("SAMPLES", "FILE").replace("--bit", samples.unit === 2 ? "--unit 2 --bit" : "--bit");
        return { says, commands: [command], isOther: true, samples };
    }
    if (form === "packed" && file.size % 1536 === 0 && areWords(head)) {
        return { says: "This looks like a block file. To make a line of it:", commands: ["aes3 encode < FILE > LINE"], isOther: true };
    }
    return form !== "text" && await turnedAdvice(codec, cells) || {
        says: "There is no whole block in these cells. Packed cells have the first of eight in the highest bit. Samples of a logic analyser "
            + "are no cells yet, but this makes cells of them:",
        commands: [CHANNEL],
    };
}
