import { log } from "log";
import { session } from "store";

export function start() {
    log("open for " + session);
}
