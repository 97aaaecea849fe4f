import { language } from "./settings.js";

let words;
try {
    words = await import("./words/" + language + ".js");
} catch (reason) {
    print(reason);
    words = await import("./words/en.js");
}
print(words.greeting);
