import { greet } from "./greet.js";

export const name = await "name.js";
print(greet("cycle"));
