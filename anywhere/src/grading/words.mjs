// The words of the command line, as bytes.
import { expanded } from "../words.mjs";

/** What stops the whole: a text for standard error, and the exit status. */
export class Refusal extends Error {
  constructor(status, text) {
    super(text);
    this.status = status;
  }
}

/** What a shell makes of a word: on Windows no shell does, and `FOLDER\\*` stands for all that is in the folder. */
function by_shell(word) {
  return process.platform === "win32" ? expanded(word.toString().replaceAll("\\", "/")).map((path) => Buffer.from(path))
    : [word];
}

const OTHERS = "it is one of programs/course/grade.sh, on Linux";

/** Reads an option and its value at the beginning of `words`, and takes them away. */
function read_option(words, options) {
  const word = words.shift().toString();
  const value = () => {
    if (words.length === 0) throw new Refusal(1, `${word} takes a word behind it; --help tells which`);
    return words.shift();
  };
  switch (word) {
    case "--work":
      options.work = value();
      break;
    case "--jobs":
      options.jobs = value().toString();
      if (!/^0*[1-9][0-9]*$/.test(options.jobs)) throw new Refusal(1, "--jobs takes a number from 1 on");
      break;
    case "--resume":
      options.resume = true;
      break;
    case "--help":
    case "-h":
      options.help = true;
      break;
    case "--sshlogin":
    case "--slurm":
      throw new Refusal(1, `no option ${word} here: ${OTHERS}`);
    default:
      throw new Refusal(1, `no option ${word}; --help tells them`);
  }
}

/** What the words, texts or bytes, ask for: options, the exercise and the paths of submissions. */
export function read_words(words) {
  const options = { work: null, jobs: null, resume: false, help: false };
  const left = words.map((word) => Buffer.from(word));
  while (left.length > 0 && !options.help && left[0][0] === 0x2d) {
    if (left[0].toString() === "--") {
      left.shift();
      break;
    }
    read_option(left, options);
  }
  if (!options.help && left.length < 2) {
    throw new Refusal(1, "usage: grade [OPTION..] EXERCISE SUBMISSION..; --help tells the options");
  }
  return { ...options, exercise: left[0], submissions: left.slice(1).flatMap(by_shell) };
}
