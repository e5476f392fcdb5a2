// Follows the links of marks as the page does: node checks/grading/links.mjs MARKS.json prints for each link a value of
// JSON, [STUDENT, EXERCISE, PLACE, EVENT, WHAT]: the event that the link's place leads to, and what came of it. It
// takes what reads links in the page, and the page's machine. For course.py beside it.
import { readFileSync } from "node:fs";
import { shared_of, unpacked_value } from "../../page/src/outside.mjs";
import { Follower } from "../followed.mjs";

const follower = new Follower({ examples: [], tabs: ["instruction"] });

/** Where a link leads. */
async function place_of(link) {
  const { run, at } = follower.words(link), shared = shared_of(await unpacked_value(run));
  follower.boot({ ...shared, keys: [...new TextEncoder().encode(shared.keys)] });
  const is_there = follower.reaches(at), last = follower.last();
  return [at, is_there ? last.at : null, last.kind];
}

for (const { id, marks } of JSON.parse(readFileSync(process.argv[2], "utf8")).students) {
  for (const { exercise, show } of marks) {
    for (const { link } of show.filter((it) => it.link !== null)) {
      console.log(JSON.stringify([id, exercise, ...await place_of(link)]));
    }
  }
}
