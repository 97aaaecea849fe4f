export * from "./items.js";
export { session } from "./session.js";
