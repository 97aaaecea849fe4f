import { element } from "ui/element.js";
import { greeting } from "format";
import { session } from "store";

export const page = "Account:" + element(greeting(session));
