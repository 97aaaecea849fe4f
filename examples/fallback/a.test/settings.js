import { stored } from "./stored.js";

export const language = await stored();
print("settings: " + language);
