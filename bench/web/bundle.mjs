// node bundle.mjs FOLDER: the files of a folder as [name, base64], for the page.
import { gather } from "./folder.mjs";

console.log(JSON.stringify(gather(process.argv[2]).map(([name, bytes]) => [name, bytes.toString("base64")])));
