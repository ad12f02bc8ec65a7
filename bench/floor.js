// What a server in Node would spend on JSON alone: it parses each line that the sessions of a script send, and makes the text of each
// line that they are sent. Prints the seconds of processor time.
//   node bench/floor.js SCRIPT OUTPUT
const fs = require('fs');

const lines = (file, form) => fs.readFileSync(file, 'utf8').split('\n').filter(line => form.test(line)).map(line => line.slice(line.indexOf(' ') + 1));

const asked = lines(process.argv[2], /^s\d+ /);
const told = lines(process.argv[3], /^\d+ \{/).map(line => JSON.parse(line));
const before = process.cpuUsage();
let size = 0;
for (const line of asked) size += Object.keys(JSON.parse(line)).length;
for (const message of told) size += JSON.stringify(message).length;
const {user, system} = process.cpuUsage(before);
if (size === 0) throw new Error('nothing was read');
console.log(((user + system) / 1e6).toFixed(3));
