import { name } from "./name.js";

export function greet(who) {
    return "hello, " + who + ", from " + name;
}

await undefined;
print("greet.js has ended");
