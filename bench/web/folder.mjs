// The files of a folder and of those in it, each as [path, bytes].
import fs from "node:fs";
import path from "node:path";

export function gather(folder, below = "") {
    const names = fs.readdirSync(path.join(folder, below)).filter(name => name[0] !== ".");
    return names.flatMap(name => {
        const whole = path.join(folder, below, name);
        if (fs.statSync(whole).isDirectory()) return gather(folder, `${below}${name}/`);
        return [[`${below}${name}`, fs.readFileSync(whole)]];
    });
}
