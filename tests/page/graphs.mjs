// Random plans: graphs of each shape, with sites that have failing jobs and resign among them.
import { drawn } from "../../page/schedule.js";

export function planOf(seed) {
  const dice = (place, count) => drawn(seed, place, count);
  const count = 2 + dice(0, 5);
  const sites = Array.from({ length: count }, (_, it) => {
    const jobs = Array.from({ length: dice(10 + it, 4) }, (__, job) => {
      return `{ name = "${job}", fails = ${dice(100 + 9 * it + job, 5) === 0} }`;
    });
    const policy = dice(50 + it, 3) === 0 ? "resign" : "go";
    return `[[site]]\nname = "${"abcdefg"[it]}"\non_fault = "${policy}"\njobs = [${jobs.join(", ")}]\n`;
  });
  const edges = [];
  for (let low = 0; low < count; low += 1) {
    for (let high = low + 1; high < count; high += 1) {
      const ends = [low, high].map((it) => `"${"abcdefg"[it]}"`).join(", ");
      if (dice(200 + 9 * low + high, 10) < 6) edges.push(`[[edge]]\nends = [${ends}]\n`);
    }
  }
  return ["version = 2\n", ...sites, ...edges].join("\n");
}
