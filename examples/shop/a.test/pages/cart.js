import { button } from "ui/button.js";
import { list } from "ui/list.js";
import { price } from "format";
import { first, total } from "store";

export const page = "Cart:" + list(first, price(total())) + button("Buy");
