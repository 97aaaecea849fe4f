import { element } from "./element.js";

export function button(label) {
    return element("(" + label + ")");
}
