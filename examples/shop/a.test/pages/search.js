import { button } from "ui/button.js";
import { matching } from "store";

export const page = "Search:" + button("Go") + " " + matching("tea");
