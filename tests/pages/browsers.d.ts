// What browsers have and the declarations of this TypeScript lack.
interface Element {
  checkVisibility(): boolean;
}
