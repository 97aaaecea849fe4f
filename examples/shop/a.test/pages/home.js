import { list } from "ui/list.js";
import { first, second } from "store";

export const page = "Home:" + list(first, second);
