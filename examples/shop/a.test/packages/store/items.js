import * as data from "../../data/items.js";
import { log } from "log";

export const first = data.tea;
export const second = data.cake;
log("the store has " + first + " and " + second);

export function total() {
    return "7";
}

export function matching(word) {
    if (word === first || word === second) {
        return word;
    }
    return "nothing";
}
