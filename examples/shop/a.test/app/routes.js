export { page as home } from "../pages/home.js";
export { page as cart } from "../pages/cart.js";
export { page as search } from "../pages/search.js";
export { page as account } from "../pages/account.js";
