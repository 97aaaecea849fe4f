import { list } from "ui/list.js";
import { second } from "store";

print("Offers:" + list(second, "half price"));
