/**
 * The bytes and the lines that the extension reads, by docs/FORMATS.md: the file `trust` that its maker ships, what a site shows, and
 * whose keys signed a confirmation. What is wrong with the maker's file is an error; what is wrong with a site's bytes is `null`.
 */

export const hex = bytes => Array.from(bytes, byte => byte.toString(16).padStart(2, "0")).join("");

export function bytes_of(text) {
  if (typeof text !== "string" || !/^([0-9a-f]{2})*$/.test(text)) throw new TypeError("this is no hex");
  return Uint8Array.from(text.match(/../g) ?? [], pair => parseInt(pair, 16));
}

/** The name of a host: without the dot that may end it. */
export const name_of = host => host.toLowerCase().replace(/\.$/, "");

/** Whether this may stand in a list of names: a name, or one with a dot in front for all names below it too. */
export const is_entry = text => /^\.?[a-z0-9]([a-z0-9.-]{0,251}[a-z0-9])?$/.test(text);

/**
 * @typedef {object} Trust
 * @property {{logs: Uint8Array[], authorities: Uint8Array[], quorum: number}} keys the directory
 * @property {Uint8Array[]} rolls the RollNotes that were known when it was made
 * @property {{zero: number, length: number, grace: number, age: number}} schedule in milliseconds, the age in epochs
 * @property {string[]} names names that have to be proved
 */

/**
 * Reads the file `trust`: the lines of a directory with RollNotes, those of a schedule, and lines `name`.
 * @param {string} text
 * @returns {Trust}
 */
export function read_trust(text) {
  const lines = text.split("\n").filter(line => line && !line.startsWith("#")).map(line => line.split(" "));
  let at = 0;
  const wrong = what => { throw new TypeError(`line ${at + 1} of the file of trust: ${what}`); };
  const next = (word, count) => {
    if (lines[at]?.[0] !== word || lines[at].length !== count + 1) wrong(`a line ${word} with ${count} words behind it has to stand here`);
    return lines[at++].slice(1);
  };
  const number = word => /^(0|[1-9][0-9]{0,15})$/.test(word) ? Number(word) : wrong(`${word} is no number`);
  const key = () => {
    const bytes = bytes_of(next("key", 1)[0]);
    return bytes.length === 56 ? bytes : wrong("a key has 56 bytes");
  };
  const keys_of = count => Array.from({ length: count }, key);
  const [count, quorum] = next("logs", 2).map(number), logs = keys_of(count);
  const authorities = keys_of(number(next("authorities", 1)[0]));
  const rolls = [], names = [], schedule = {};
  while (lines[at]?.[0] === "roll") rolls.push(bytes_of(next("roll", 1)[0]));
  for (const word of ["zero", "length", "grace", "age"]) schedule[word] = number(next(word, 1)[0]);
  if (schedule.length < 1000 || schedule.age < 1) wrong("an epoch has a second at least, and an age is 1 at least");
  while (at < lines.length) {
    const [name] = next("name", 1);
    names.push(is_entry(name) ? name : wrong(`${name} is no name`));
  }
  return { keys: { logs, authorities, quorum }, rolls, schedule, names };
}

/* Reads fields one behind the other, and throws a RangeError where the bytes end. */
class Fields {
  constructor(bytes) {
    Object.assign(this, { bytes, at: 0 });
  }

  take(count) {
    if (this.at + count > this.bytes.length) throw new RangeError("the bytes end");
    this.at += count;
    return this.bytes.subarray(this.at - count, this.at);
  }

  number(width) {
    return Number(this.take(width).reduce((value, byte) => value * 256n + BigInt(byte), 0n));
  }

  counted(width) {
    return this.take(this.number(width));
  }

  get isOver() {
    return this.at === this.bytes.length;
  }
}

function or_null(read) {
  try {
    return read();
  } catch (fault) {
    if (fault instanceof RangeError) return null;
    throw fault;
  }
}

/** What a site shows for a TLS key: its confirmation and its staple. */
export function read_proof(bytes) {
  return or_null(() => {
    const fields = new Fields(bytes), confirmation = fields.counted(4), staple = fields.counted(4);
    return fields.isOver ? { confirmation, staple } : null;
  });
}

const statement = (kind, role, number, text) => Uint8Array.of(kind, role, number >> 8, number & 255, ...text);

/**
 * What a confirmation says before anything of it is judged: its epoch, the certificate's bytes, and of each of the three who signed the
 * party, the generation of its key, the text and the signature.
 */
export function read_confirmation(bytes) {
  return or_null(() => {
    const fields = new Fields(bytes);
    if (fields.number(1) !== 12) return null;
    const form = fields.number(1);
    fields.take(2);
    const begun = fields.at, epoch = fields.number(8);
    fields.counted(1);
    const subject = bytes.slice(begun, fields.at), root = fields.take(32), certificate = form === 1 ? fields.counted(2) : null;
    if (form !== 1 && fields.number(1) !== 0) fields.take(64);
    for (let left = fields.number(2); left > 0; left -= 1) fields.take(32);
    const signers = ["L", "A", "A"].map(letter => {
      const number = fields.number(2), signature = fields.counted(2);
      return { party: `${letter}${number}`, role: letter === "L" ? 1 : 2, number, signature, generation: new Fields(signature).number(4) };
    });
    return fields.isOver ? { form, epoch, subject, root, certificate, signers } : null;
  });
}

/** The texts that the three of a confirmation signed, each with its signature: lines of `arpki audit`. */
export async function statements_of(bytes) {
  const read = read_confirmation(bytes);
  if (read === null) return [];
  const digest = read.certificate ? await digest_of(read.certificate) : new Uint8Array();
  return read.signers.map(signer =>
    `statement ${hex(statement(read.form === 1 ? 6 : 7, signer.role, signer.number, [...read.subject, ...digest, ...read.root]))} ${hex(signer.signature)}`);
}

/** The digest of a certificate. */
export async function digest_of(certificate) {
  return new Uint8Array(await crypto.subtle.digest("SHA-256", Uint8Array.of(0x10, ...certificate)));
}
