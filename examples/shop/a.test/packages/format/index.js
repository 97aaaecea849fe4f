export * from "./price.js";
export * from "./words.js";
