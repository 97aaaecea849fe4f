import { element } from "./element.js";

export function list(one, other) {
    return element(one) + element(other);
}
