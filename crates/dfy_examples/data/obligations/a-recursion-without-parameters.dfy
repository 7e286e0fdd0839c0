method M() {
  M();
}
