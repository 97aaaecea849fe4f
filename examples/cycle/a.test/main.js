import { greet } from "./greet.js";

print(greet("main"));
