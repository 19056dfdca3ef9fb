export * from "./hound.cjs";
