/* a /* b */ c */ method /**/ M() // }
{ }
