/* Channel status by its fields, in the order and the words of `aes3 show`. */

/* What each field is, by the status' use and the field's name. */
const MEANINGS = {
    professional: {
        payload: "what the sample words carry",
        emphasis: "pre-emphasis",
        unlocked: "source's sampling frequency is unlocked",
        rate: "sampling frequency in Hz",
        mode: "channel mode",
        user: "management of the user bits",
        aux: "use of the auxiliary bits",
        word: "sample word length in bits",
        b2high: "byte 2, bits 6 and 7",
        b3: "byte 3: multichannel use",
        b4: "byte 4: reference signal, further frequencies",
        b5: "byte 5",
        origin: "origin",
        destination: "destination",
        local: "local sample address",
        time: "time of day as a sample address",
        unreliable: "bytes 0-5, 6-13, 14-17, 18-21 are unreliable",
        b22low: "byte 22, bits 0 to 3",
        check: "check byte (CRCC)",
    },
    consumer: {
        payload: "what the sample words carry",
        copyright: "copyright",
        emphasis: "pre-emphasis, of linear PCM",
        mode: "status mode",
        category: "category of the source",
        generation: "generation status",
        source: "source number",
        number: "channel number",
        rate: "sampling frequency in Hz",
        accuracy: "clock accuracy",
        b3high: "byte 3, bits 6 and 7",
        greatest: "greatest sample word length in bits",
        word: "sample word length in bits",
        original: "original sampling frequency, as its code",
        rest: "bytes 5 to 23",
    },
};

/* The use and the fields of a channel status, each field with its value and what it is. */
export function statusOf(codec, status) {
    const [kind, ...texts] = codec.textOf(status).trim().split(" ");
    const fields = texts.map(text => {
        const at = text.indexOf("=");
        const name = text.slice(0, at);
        return [name, text.slice(at + 1), MEANINGS[kind][name]];
    });
    return { kind, fields };
}

/* A field's value, by its name. */
export const valueOf = ({ fields }, wanted) => fields.find(([name]) => name === wanted)[1];

/* Whether a status says that the sample words are something else than linear PCM. */
export const isOtherThanPcm = (codec, status) => valueOf(statusOf(codec, status), "payload") !== "pcm";

/* A channel's line, as `aes3 show` writes it. */
export function statusLine(codec, status, block, channel) {
    return `block=${block} channel=${channel}${codec.textOf(status)}`;
}
